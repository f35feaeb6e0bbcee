/* The board's functions by a kernel that works in place: the state area holds a struct, and nobody
 * asks whether it is sound. */
#include "kernel.h"

#define K ((struct kernel *)(void *)state)

csengadrul_answer csengadrul_fresh(uint8_t *state, size_t length) {
    (void)length;
    return kernel_fresh(K, CSENGADRUL_USUAL_SLICE);
}

csengadrul_answer csengadrul_fresh_slice(uint8_t *state, size_t length, uint32_t slice) {
    (void)length;
    return kernel_fresh(K, slice);
}

csengadrul_answer csengadrul_create(uint8_t *state, size_t length, uint32_t class_number) {
    (void)length;
    return kernel_create(K, class_number);
}

csengadrul_answer csengadrul_stop(uint8_t *state, size_t length, uint32_t name) {
    (void)length;
    return kernel_stop(K, name);
}

csengadrul_answer csengadrul_end(uint8_t *state, size_t length) {
    (void)length;
    return kernel_end(K);
}

csengadrul_answer csengadrul_yield(uint8_t *state, size_t length) {
    (void)length;
    return kernel_yield(K);
}

csengadrul_answer csengadrul_class(uint8_t *state, size_t length, uint32_t class_number) {
    (void)length;
    return kernel_class(K, class_number);
}

csengadrul_answer csengadrul_tick(uint8_t *state, size_t length) {
    (void)length;
    return kernel_tick(K);
}

csengadrul_answer csengadrul_mailbox(uint8_t *state, size_t length, uint32_t mailbox, uint32_t capacity, uint32_t mode) {
    (void)length;
    return kernel_mailbox(K, mailbox, capacity, mode);
}

csengadrul_answer csengadrul_send(uint8_t *state, size_t length, uint8_t *store, size_t store_length, uint32_t mailbox,
                                  const uint8_t *message, size_t message_length) {
    (void)length;
    return kernel_send(K, store, store_length, mailbox, message, message_length);
}

csengadrul_answer csengadrul_receive(uint8_t *state, size_t length, uint32_t mailbox) {
    (void)length;
    return kernel_receive(K, mailbox);
}

csengadrul_answer csengadrul_read(const uint8_t *state, size_t length, const uint8_t *store, size_t store_length,
                                  uint8_t *room, size_t room_length) {
    (void)length;
    return kernel_read((const struct kernel *)(const void *)state, store, store_length, room, room_length);
}

csengadrul_answer csengadrul_release(uint8_t *state, size_t length) {
    (void)length;
    return kernel_release(K);
}

csengadrul_answer csengadrul_signal(uint8_t *state, size_t length, uint32_t semaphore) {
    (void)length;
    return kernel_signal(K, semaphore);
}

csengadrul_answer csengadrul_wait(uint8_t *state, size_t length, uint32_t semaphore) {
    (void)length;
    return kernel_wait(K, semaphore);
}

csengadrul_answer csengadrul_listing(const uint8_t *state, size_t length, csengadrul_row *rows, size_t row_count) {
    (void)length;
    return kernel_listing((const struct kernel *)(const void *)state, rows, row_count);
}

csengadrul_reason csengadrul_why(const uint8_t *state, size_t length, uint32_t name) {
    (void)length;
    return kernel_why((const struct kernel *)(const void *)state, name);
}
