; Text that waits for a key. For measuring: it never ends.
%include "program.inc"

start:  mode    3
        xor     ah, ah
        int     16h
        jmp     start
