; What DOSBox's own adapter shows otherwise: panned text, colour plane enable, the map mask in text,
; no palette, and a DAC that changes within a line.
%include "program.inc"

start:  mode    3
        mov     ah, 1                   ; no cursor, since it blinks
        mov     cx, 2000h
        int     10h
        display 0B800h
        xor     di, di
        mov     cx, 2000
.cell:  mov     ax, cx
        and     al, 63
        add     al, 32
        mov     ah, cl
        and     ah, 7Fh
        stosw
        loop    .cell
        attribute 13h, 3
        picture                         ; text that is panned by four dots
        attribute 13h, 8
        attribute 12h, 7
        picture                         ; no plane 3: attributes lose their brightness
        attribute 12h, 15
        outw    3C4h, 0102h
        xor     di, di
        mov     ax, 4F41h
        mov     cx, 400
        rep stosw
        outw    3C4h, 0302h
        picture                         ; only plane 0 was written: the attributes stay
        attribute 11h, 1
        mov     dx, 3DAh
        in      al, dx
        outb    3C0h, 0
        picture                         ; the overscan colour, as the palette is not shown
        mode    13h
        mov     cx, 12
        call    frames
        out     0E8h, al
        cli
        mov     bx, 2
.frame: mov     cx, 8000
.entry: outb    3C8h, 0                 ; the background changes some ten times a line
        inc     dx
        mov     al, cl
        out     dx, al
        out     dx, al
        out     dx, al
        loop    .entry
        dec     bx
        jnz     .frame
        sti
        quit
