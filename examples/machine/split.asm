; A split screen. Mode 0D over rows twice as wide: the upper part glides by start address and panning, the lower one
; stands still below line compare.
%include "video.inc"

ROW     equ 80
UPPER   equ 1000h
SPLIT   equ 320

        mode 0Dh
        register CONTROLLER, 13h, ROW / 2
        mov ax, 0A000h
        mov es, ax
        cld
        call fill_lower
        call fill_upper
        call split
        call hold_panning

frame:  call glide
        retrace
        call pan
        inc word [place]
        cmp word [place], 320
        jb .on
        mov word [place], 0
.on:    until_key frame

; Stripes, from offset 0 on: a split begins there.
fill_lower:
        register SEQUENCER, 2, 01h      ; map mask: plane 0
        xor di, di
        mov al, 0F0h
        mov cx, ROW * 40
        rep stosb
        ret

; In each plane stairs of another height.
fill_upper:
        mov bp, 1
.plane: mov ax, bp
        mov ah, al
        mov al, 2
        mov dx, SEQUENCER
        out dx, ax
        mov di, UPPER
        xor dx, dx                      ; the row
.row:   mov si, ROW
.byte:  mov ax, si
        add ax, dx
        and ax, bp
        neg ax
        sbb al, al
        xor al, dl
        stosb
        dec si
        jnz .byte
        inc dx
        cmp dx, 160
        jb .row
        shl bp, 1
        cmp bp, 10h
        jb .plane
        ret

; Line compare has its ninth bit in overflow, and its tenth in maximum scan line.
split:  register CONTROLLER, 18h, SPLIT & 0FFh
        mov al, 7
        out dx, al
        inc dx
        in al, dx
        or al, 10h
        out dx, al
        dec dx
        mov al, 9
        out dx, al
        inc dx
        in al, dx
        and al, 0BFh
        out dx, al
        ret

; The lower part is not panned: bit 5 of mode control. A read of the status makes the next write an index.
hold_panning:
        mov dx, STATUS
        in al, dx
        mov dx, ATTRIBUTES
        mov al, 30h
        out dx, al
        mov al, 21h
        out dx, al
        ret

glide:  mov bx, [place]
        shr bx, 3
        add bx, UPPER
        mov dx, CONTROLLER
        mov al, 0Ch
        mov ah, bh
        out dx, ax
        inc al
        mov ah, bl
        out dx, ax
        ret

pan:    mov dx, ATTRIBUTES
        mov al, 33h
        out dx, al
        mov al, [place]
        and al, 7
        out dx, al
        ret

place   dw 0
