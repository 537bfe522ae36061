; Mode 13 as many games use it: a picture is drawn in memory, and copied at the retrace.
%include "program.inc"

start:  mode    13h
        mov     ax, cs
        add     ax, 1000h
        mov     fs, ax
        mov     es, ax
        xor     di, di
        xor     ax, ax
        mov     cx, 32000
        rep stosw
        xor     bp, bp
frame:  mov     di, bp
        mov     cx, 200
.draw:  mov     [fs:di], bp
        add     di, 321
        loop    .draw
        inc     bp
        mov     cx, 1
        call    frames
        push    ds
        push    fs
        pop     ds
        display 0A000h
        xor     si, si
        xor     di, di
        mov     cx, 16000
        rep movsd
        pop     ds
        rounds  20, frame
