# Ends at once: what an image that is padded to many words costs is its loading.
        .globl _start
_start: li      a0, 0
        li      a7, EXIT
        ecall
