; Mode 13: all entries of the DAC change at each retrace.
%include "program.inc"

start:  mode    13h
        display 0A000h
        xor     di, di
        mov     cx, 64000
.pixel: mov     ax, di
        shr     ax, 4
        stosb
        loop    .pixel
frame:  mov     cx, 1
        call    frames
        inc     bp
        outb    3C8h, 0
        inc     dx
        mov     cx, 768
        mov     ax, bp
.entry: inc     ax
        and     al, 63
        out     dx, al
        loop    .entry
        rounds  10, frame
