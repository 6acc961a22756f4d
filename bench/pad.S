/* PAD bytes that are never run: they move the code linked after them to another place in its cache line. */
    .text
    .p2align 6
    .fill PAD, 1, 0x90
    .section .note.GNU-stack, "", @progbits
