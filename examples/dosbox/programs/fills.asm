; Mode 12: rectangles by set/reset and rep stosb, and a copy by the latches.
%include "program.inc"

start:  mode    12h
        display 0A000h
        outw    3CEh, 0F01h
fill:   inc     bx
        mov     dx, 3CEh
        mov     ah, bl
        and     ah, 15
        mov     al, 0
        out     dx, ax
        mov     di, bx
        and     di, 4095
        mov     bp, 100
.line:  mov     cx, 40
        rep stosb
        add     di, 40
        dec     bp
        jnz     .line
        outw    3CEh, 0105h
        push    ds
        push    es
        pop     ds
        mov     si, 80
        mov     di, 20000
        mov     cx, 8000
        rep movsb
        pop     ds
        outw    3CEh, 0005h
        rounds  50, fill
