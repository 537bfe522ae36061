; Boxes with a mistake. Mode 12: only the first line of a box is whole; the others have gaps. Pause, click a dot
; below a first line, and ask for the step that changed it last.
%include "video.inc"

ROW     equ 80

        mode 12h
        mov ax, 0A000h
        mov es, ax
        register GRAPHICS, 1, 0Fh       ; enable set/reset: all planes
        cld

next:   inc byte [colour]
        mov ah, [colour]
        and ah, 0Fh
        mov al, 0
        mov dx, GRAPHICS
        out dx, ax
        call box
        retrace
        until_key next

; A box of 61 dots and 40 lines: seven whole bytes, and five dots of the eighth.
box:    mov di, [place]
        mov bp, 40
        mov al, 8                       ; bit mask: all dots. These lines belong behind .row.
        mov ah, 0FFh
        mov dx, GRAPHICS
        out dx, ax
.row:   mov cx, 7
        rep stosb
        mov al, 8                       ; bit mask: five dots
        mov ah, 0F8h
        out dx, ax
        mov al, [es:di]                 ; loads the latches
        stosb
        add di, ROW - 8
        dec bp
        jnz .row
        add word [place], 10            ; the box beside it, or the first one again
        cmp word [place], 40
        jb .on
        mov word [place], 0
.on:    ret

place   dw 0
colour  db 0
