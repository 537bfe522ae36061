; Mode 13, and work that touches no display. For measuring: it never ends.
%include "program.inc"

start:  mode    13h
        display 0A000h
        xor     di, di
        mov     cx, 64000
.pixel: mov     ax, di
        stosb
        loop    .pixel
work:   imul    ax, bx, 3
        add     ax, cx
        xor     bx, ax
        inc     cx
        jmp     work
