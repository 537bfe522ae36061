; 256 colours without chain 4: a page is copied plane by plane, and shown at the next retrace.
%include "program.inc"

start:  mode    13h
        outw    3C4h, 0604h             ; chain 4 off
        outw    3D4h, 0014h             ; bytes, and not double words
        outw    3D4h, 0E317h
        mov     ax, cs
        add     ax, 1000h
        mov     fs, ax                  ; the picture is made there
        mov     es, ax
        xor     di, di
        mov     cx, 16384
.make:  mov     ax, di
        shr     ax, 3
        xor     ax, di
        stosw
        loop    .make
        xor     bp, bp
frame:  push    ds
        push    fs
        pop     ds
        display 0A000h
        xor     bx, bx
.plane: mov     dx, 3C4h
        mov     ax, 0102h
        mov     cl, bl
        shl     ah, cl
        out     dx, ax
        mov     di, bp
        mov     si, bx
        mov     cx, 8000
        rep movsw
        inc     bx
        cmp     bx, 4
        jb      .plane
        pop     ds
        mov     dx, 3D4h
        mov     ax, bp
        mov     al, 0Ch
        out     dx, ax
        mov     cx, 1
        call    frames
        xor     bp, 4000h
        inc     byte [fs:bp + 77]
        rounds  5, frame
