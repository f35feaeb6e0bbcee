//! A kernel with someone in every place, for the tests of what is told about it.

use crate::kernel::Kernel;

/// With a slice of 3 ticks. 4 runs, 1 and 3 wait at mailbox 9, 2 at semaphore 15, and 5, 6 and 7 are ready; 2 and 4 have
/// a message in hand.
pub fn everyone() -> Kernel {
    let mut kernel = Kernel::fresh_slice(3).unwrap();
    kernel.create(4);
    kernel.receive(9); // 1 waits at mailbox 9
    kernel.create(3);
    kernel.send(2, b"!");
    kernel.receive(2);
    kernel.wait(15); // 2 waits at semaphore 15 with a byte in hand
    kernel.create(4);
    kernel.receive(9); // 3 waits behind 1
    kernel.create(2); // 4 runs
    kernel.create(1); // 5, 6 and 7 are ready
    kernel.create(1);
    kernel.create(0);
    kernel.send(0, b"");
    kernel.receive(0); // 4 has a message of no bytes in hand
    kernel.tick();
    kernel
}
