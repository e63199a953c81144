/* The calls on a drive that an emulator makes all the time, for JavaScript, whose numbers are doubles: a call with numbers of 64 bits would make a BigInt for
 * each. A drive is the place of its handle; moments below 2^53 are exact. */
typedef __UINT64_TYPE__ u64;
typedef __UINT32_TYPE__ u32;
typedef __INT32_TYPE__ i32;
typedef __UINT8_TYPE__ u8;

/* y1541_reacted of the header. */
struct reacted {
    u64 moment;
    u8 clock_low, data_low, clock_changed, data_changed;
};

i32 y1541_lines(void *drive, u64 moment, u8 atn_low, u8 clock_low, u8 data_low);
u64 y1541_next_due(void *drive);
i32 y1541_due(void *drive, u64 moment, struct reacted *reacted);

#define FOR_JS(name) __attribute__((export_name(#name)))

FOR_JS(js_lines) i32 js_lines(u32 drive, double moment, u32 atn_low, u32 clock_low, u32 data_low) {
    return y1541_lines((void *)(u64)drive, (u64)moment, (u8)atn_low, (u8)clock_low, (u8)data_low);
}

/* Infinity for UINT64_MAX. */
FOR_JS(js_next_due) double js_next_due(u32 drive) {
    u64 due = y1541_next_due((void *)(u64)drive);
    return due == ~(u64)0 ? __builtin_inf() : (double)due;
}

/* The moment of the reaction, or a number below 0; `flags` gets the four flags of the struct, from the lowest bit on. */
FOR_JS(js_due) double js_due(u32 drive, double moment, u32 flags) {
    struct reacted it;
    i32 said = y1541_due((void *)(u64)drive, (u64)moment, &it);
    if (said) return said;
    *(u8 *)(u64)flags = (u8)(it.clock_low | it.data_low << 1 | it.clock_changed << 2 | it.data_changed << 3);
    return (double)it.moment;
}
