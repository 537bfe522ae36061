; Mode 13 with another start address and a split: alone, with panning, and on an odd line.
%include "program.inc"

start:  mode    13h
        display 0A000h
        xor     di, di
        xor     bx, bx
.row:   xor     cx, cx
.pixel: mov     ax, cx
        add     ax, bx
        stosb
        inc     cx
        cmp     cx, 320
        jb      .pixel
        inc     bx
        cmp     bx, 204
        jb      .row
        outw    3D4h, 0C0Ch             ; 40 rows on
        outw    3D4h, 800Dh
        outw    3D4h, 2C18h             ; the split is at line 300: 12C
        outb    3D4h, 7
        inc     dx
        in      al, dx
        or      al, 10h
        out     dx, al
        outb    3D4h, 9
        inc     dx
        in      al, dx
        and     al, 0BFh
        out     dx, al
        picture
        attribute 10h, 61h              ; the split resets panning
        attribute 13h, 4
        picture
        outw    3D4h, 2D18h
        outw    3D4h, 0108h             ; and the first row has one line
        picture
        quit
