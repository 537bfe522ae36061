; Mode 12: single pixels by set/reset and the bit mask, each a read and a write.
%include "program.inc"

start:  mode    12h
        display 0A000h
        outw    3CEh, 0F01h
        xor     bx, bx
pixel:  add     bx, 40503
        imul    di, bx, 17
        cmp     di, 38400
        jb      .inside
        sub     di, 38400
.inside:
        mov     cl, bl
        and     cl, 7
        mov     dx, 3CEh
        mov     ah, 80h
        shr     ah, cl
        mov     al, 8
        out     dx, ax
        mov     ah, bh
        and     ah, 15
        mov     al, 0
        out     dx, ax
        mov     al, [es:di]
        mov     [es:di], al
        rounds  20000, pixel
