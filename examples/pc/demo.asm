; A floppy to show the PC with: bars in mode 12, colours in mode 13, and a line that is typed in mode 3.
;
;     nasm -f bin demo.asm -o demo.img
;
; Sector 1 is the boot sector, which loads sector 2 behind itself. A key leads on, and Escape ends it.

        cpu 286
        bits 16
        org 0x7c00

DISPLAY         equ 0xa000              ; the segment of display memory in graphics
BAR             equ 2400                ; bytes of a plane in a bar: 30 lines of 80
SCREEN          equ 38400               ; and in all sixteen
ESCAPE          equ 27

start:  cli
        xor ax, ax
        mov ds, ax
        mov es, ax
        mov ss, ax
        mov sp, 0x7c00
        sti
        cld
        mov ax, 0x0201                  ; a sector, to where this one ends
        mov bx, second
        mov cx, 0x0002
        xor dx, dx
        int 0x13
        jc unread
        jmp bars
unread: mov si, lost
        call type
        jmp $

; Types the text at SI, up to its 0, in light green where pixels are drawn.
type:   mov bx, 0x000a
.next:  lodsb
        test al, al
        jz .done
        mov ah, 0x0e
        int 0x10
        jmp .next
.done:  ret

; Waits for a key.
key:    xor ah, ah
        int 0x16
        ret

lost    db 'sector 2 cannot be read', 0
        times 510 - ($ - $$) db 0
        dw 0xaa55

second:
; Mode 12: a bar has bit p of its number in plane p, so plane p has bars twice as high as plane p - 1.
bars:   mov ax, 0x0012
        int 0x10
        push word DISPLAY
        pop es
        mov bx, BAR
        mov ax, 0x0102                  ; map mask: plane 0
.plane: mov dx, 0x3c4
        out dx, ax
        push ax
        mov di, bx
.bar:   mov cx, bx
        mov al, 0xff
        rep stosb
        add di, bx
        cmp di, SCREEN
        jb .bar
        add bx, bx
        pop ax
        add ah, ah
        cmp ah, 0x10
        jne .plane
        mov ax, 0x0f02                  ; all planes again
        out dx, ax
        mov si, first
        call type
        call key

; Mode 13: a row of sixteen colours after the other.
        mov ax, 0x0013
        int 0x10
        xor di, di
        xor dx, dx                      ; the line
.line:  mov ax, dx
        shl ax, 1
        mov bl, 25
        div bl                          ; the row, 0 to 15
        shl al, 4
        mov bx, 16
.box:   mov cx, 20
        rep stosb
        inc al
        dec bx
        jnz .box
        inc dx
        cmp dx, 200
        jb .line
        call key

; Mode 3: what is typed is shown.
        mov ax, 0x0003
        int 0x10
        mov si, last
        call type
.typed: call key
        cmp al, ESCAPE
        je .end
        mov bx, 7
        mov ah, 0x0e
        int 0x10
        cmp al, 13
        jne .typed
        mov al, 10
        int 0x10
        jmp .typed
.end:   int 0x19

first   db 'Sixteen colours in four planes. Press a key.', 0
last    db 'Type; Escape ends it.', 13, 10, 10, 0
        times 1024 - ($ - $$) db 0
