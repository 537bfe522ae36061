; Mode X, 320 by 240 without chain 4: two pages, a flip between them, and panning.
%include "program.inc"

start:  mode    13h
        outw    3C4h, 0604h             ; chain 4 off
        outw    3C4h, 0100h
        outb    3C2h, 0E3h              ; 480 lines
        outw    3C4h, 0300h
        outb    3D4h, 11h
        inc     dx
        in      al, dx
        and     al, 7Fh                 ; registers 0 to 7 may be written
        out     dx, al
        dec     dx
        mov     si, registers
        mov     cx, 10
.register:
        lodsw
        out     dx, ax
        loop    .register
        display 0A000h
        xor     bp, bp                  ; where the page begins
.page:  xor     bx, bx                  ; the plane
.plane: mov     dx, 3C4h
        mov     ax, 0102h
        mov     cl, bl
        shl     ah, cl
        out     dx, ax
        mov     di, bp
        xor     dx, dx                  ; y
.row:   xor     cx, cx
.pixel: mov     ax, cx
        shl     ax, 2
        add     ax, bx
        xor     ax, dx
        test    bp, bp
        jz      .first
        shr     al, 2
        add     al, dl
.first: stosb
        inc     cx
        cmp     cx, 80
        jb      .pixel
        inc     dx
        cmp     dx, 240
        jb      .row
        inc     bx
        cmp     bx, 4
        jb      .plane
        add     bp, 4B00h
        cmp     bp, 9600h
        jb      .page
        picture
        outw    3D4h, 4B0Ch             ; the second page
        outw    3D4h, 000Dh
        picture
        outw    3D4h, 050Dh             ; 20 pixels on, and two more by panning
        attribute 13h, 4
        picture
        quit

registers:
        dw      0D06h, 3E07h, 4109h, 0EA10h, 0AC11h, 0DF12h, 0014h, 0E715h, 0616h, 0E317h
