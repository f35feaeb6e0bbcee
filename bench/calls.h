/* The board's functions by a kernel in C that does all that the board does: it reads the image of
 * docs/IMAGE.md, decides whether the state is sound, works, and writes the image back. The file that
 * includes this one decides. */
#ifndef BENCH_CALLS_H
#define BENCH_CALLS_H

#include "kernel.h"

static int is_sound(const struct kernel *k);

/* Copies a field between the image and the struct; x86-64 has the lowest byte first, as the image. */
#define EACH_FIELD(copy) \
    copy(running) copy(class_of) copy(ticks) copy(next) copy(before) copy(ready) copy(unused) copy(box_next) \
    copy(box_before) copy(hand) copy(full) copy(length) copy(free) copy(chain) copy(count) copy(births) copy(slice) \
    copy(capacity) copy(mode)
#define FROM_IMAGE(field) memcpy(&k->field, state, sizeof k->field); state += sizeof k->field;
#define TO_IMAGE(field) memcpy(state, &k->field, sizeof k->field); state += sizeof k->field;

static void read_image(struct kernel *k, const uint8_t *state) {
    EACH_FIELD(FROM_IMAGE)
}

static void write_image(uint8_t *state, const struct kernel *k) {
    EACH_FIELD(TO_IMAGE)
}

static int open_image(struct kernel *k, const uint8_t *state, size_t length) {
    if (length != CSENGADRUL_STATE_SIZE) return 0;
    read_image(k, state);
    return is_sound(k);
}

static csengadrul_answer not_sound(void) {
    return refusal(CSENGADRUL_NOT_SOUND);
}

/* A call that may change the state. */
#define CALL(made) \
    struct kernel k; \
    csengadrul_answer a; \
    if (!open_image(&k, state, length)) return not_sound(); \
    a = made; \
    write_image(state, &k); \
    return a;

static csengadrul_answer begin(uint8_t *state, size_t length, uint32_t slice) {
    struct kernel k;
    csengadrul_answer a;
    if (length != CSENGADRUL_STATE_SIZE) return not_sound();
    a = kernel_fresh(&k, slice);
    if (a.code == CSENGADRUL_DONE) write_image(state, &k);
    return a;
}

csengadrul_answer csengadrul_fresh(uint8_t *state, size_t length) {
    return begin(state, length, CSENGADRUL_USUAL_SLICE);
}

csengadrul_answer csengadrul_fresh_slice(uint8_t *state, size_t length, uint32_t slice) {
    return begin(state, length, slice);
}

csengadrul_answer csengadrul_create(uint8_t *state, size_t length, uint32_t class_number) {
    CALL(kernel_create(&k, class_number))
}

csengadrul_answer csengadrul_stop(uint8_t *state, size_t length, uint32_t name) {
    CALL(kernel_stop(&k, name))
}

csengadrul_answer csengadrul_end(uint8_t *state, size_t length) {
    CALL(kernel_end(&k))
}

csengadrul_answer csengadrul_yield(uint8_t *state, size_t length) {
    CALL(kernel_yield(&k))
}

csengadrul_answer csengadrul_class(uint8_t *state, size_t length, uint32_t class_number) {
    CALL(kernel_class(&k, class_number))
}

csengadrul_answer csengadrul_tick(uint8_t *state, size_t length) {
    CALL(kernel_tick(&k))
}

csengadrul_answer csengadrul_mailbox(uint8_t *state, size_t length, uint32_t mailbox, uint32_t capacity, uint32_t mode) {
    CALL(kernel_mailbox(&k, mailbox, capacity, mode))
}

csengadrul_answer csengadrul_send(uint8_t *state, size_t length, uint8_t *store, size_t store_length, uint32_t mailbox,
                                  const uint8_t *message, size_t message_length) {
    CALL(kernel_send(&k, store, store_length, mailbox, message, message_length))
}

csengadrul_answer csengadrul_receive(uint8_t *state, size_t length, uint32_t mailbox) {
    CALL(kernel_receive(&k, mailbox))
}

csengadrul_answer csengadrul_read(const uint8_t *state, size_t length, const uint8_t *store, size_t store_length,
                                  uint8_t *room, size_t room_length) {
    struct kernel k;
    if (!open_image(&k, state, length)) return not_sound();
    return kernel_read(&k, store, store_length, room, room_length);
}

csengadrul_answer csengadrul_release(uint8_t *state, size_t length) {
    CALL(kernel_release(&k))
}

csengadrul_answer csengadrul_signal(uint8_t *state, size_t length, uint32_t semaphore) {
    CALL(kernel_signal(&k, semaphore))
}

csengadrul_answer csengadrul_wait(uint8_t *state, size_t length, uint32_t semaphore) {
    CALL(kernel_wait(&k, semaphore))
}

csengadrul_answer csengadrul_listing(const uint8_t *state, size_t length, csengadrul_row *rows, size_t row_count) {
    struct kernel k;
    if (!open_image(&k, state, length)) return not_sound();
    return kernel_listing(&k, rows, row_count);
}

csengadrul_reason csengadrul_why(const uint8_t *state, size_t length, uint32_t name) {
    struct kernel k;
    if (!open_image(&k, state, length)) return reason(not_sound(), 0, 0, 0);
    return kernel_why(&k, name);
}

#endif
