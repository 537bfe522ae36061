; A box on two pages. 320 by 240 dots in 256 colours, without chain 4: it moves, and the pages change places in the
; retrace.
%include "video.inc"

ROW     equ 80
PAGE    equ ROW * 240
SIDE    equ 64

        mode 13h
        register SEQUENCER, 4, 06h      ; memory mode: no chain 4
        register CONTROLLER, 14h, 00h   ; underline location: no double words
        register CONTROLLER, 17h, 0E3h  ; mode control: bytes
        mov dx, MISC
        mov al, 0E3h                    ; the polarity of 480 lines
        out dx, al
        call set_lines
        mov ax, 0A000h
        mov es, ax
        cld

frame:  call clear
        call box
        call show
        call move
        until_key frame

; 480 lines, each row two of them: the registers 0 to 7 are protected first.
set_lines:
        register CONTROLLER, 11h, 2Ch
        mov si, lines
        mov cx, 7
.next:  lodsw
        out dx, ax
        loop .next
        ret

; All planes at once.
clear:  register SEQUENCER, 2, 0Fh      ; map mask
        mov di, [page]
        mov ax, 0101h
        mov cx, PAGE / 2
        rep stosw
        ret

; Plane by plane: each has every fourth dot of a row.
box:    mov ax, ROW
        mul word [y]
        mov bx, [x]
        shr bx, 2
        add bx, ax
        add bx, [page]
        mov bp, 1                       ; the plane's bit
.plane: mov dx, SEQUENCER
        mov ax, bp
        mov ah, al
        mov al, 2
        out dx, ax
        mov di, bx
        mov si, SIDE
.row:   mov ax, si
        add al, 32
        mov cx, SIDE / 4
.dots:  stosb
        inc al
        loop .dots
        add di, ROW - SIDE / 4
        dec si
        jnz .row
        shl bp, 1
        cmp bp, 10h
        jb .plane
        ret

; The start address is taken over when a frame begins: wait for the retrace before the next page is drawn.
show:   mov dx, CONTROLLER
        mov al, 0Ch
        mov ah, [page + 1]
        out dx, ax
        inc al
        mov ah, [page]
        out dx, ax
        retrace
        xor word [page], PAGE
        ret

; The box comes back from each side.
move:   mov ax, [across]
        add ax, [x]
        cmp ax, 320 - SIDE
        jbe .x
        neg word [across]
        mov ax, [x]
.x:     mov [x], ax
        mov ax, [down]
        add ax, [y]
        cmp ax, 240 - SIDE
        jbe .y
        neg word [down]
        mov ax, [y]
.y:     mov [y], ax
        ret

lines   dw 0D06h, 3E07h, 4109h, 0EA10h, 0AC11h, 0DF12h, 0E715h
page    dw 0
x       dw 16
y       dw 24
across  dw 4
down    dw 3
