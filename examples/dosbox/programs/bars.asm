; Text over raster bars: entry 0 of the DAC changes at each line, as bit 0 of port 3DA tells it.
%include "program.inc"

start:  mode    3
        mov     ah, 1                   ; no cursor, since it blinks
        mov     cx, 2000h
        int     10h
        mov     ah, 9
        mov     dx, text
        int     21h
        mov     bp, 30
frame:  cli
        mov     dx, 3DAh
.shown: in      al, dx
        test    al, 8
        jz      .shown
.over:  in      al, dx
        test    al, 8
        jnz     .over
        xor     cx, cx
.line:  mov     dx, 3DAh
.dots:  in      al, dx
        test    al, 1
        jnz     .dots
.blank: in      al, dx
        test    al, 1
        jz      .blank
        outb    3C8h, 0
        inc     dx
        mov     al, cl
        and     al, 63
        out     dx, al
        mov     al, cl
        shr     al, 2
        out     dx, al
        mov     al, 63
        sub     al, cl
        and     al, 63
        out     dx, al
        inc     cx
        cmp     cx, 396
        jb      .line
        sti
%ifndef ENDLESS
        cmp     bp, 5
        jne     .on
        out     0E8h, al
.on:    dec     bp
        jnz     frame
        quit
%else
        jmp     frame
%endif

text:   db      13, 10, 10, '  Raster bars behind text$'
