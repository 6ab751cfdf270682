; first: writes a line and ends. nasm -f bin -l first.lst -o first.bin first.asm; tools/ne.py first.lst first.exe
;@ module FIRST
;@ stack 512
;@ start 1:0000
bits 16

;@ segment 1 code
section code vstart=0
    push 1                      ; the standard output
    push ds                     ; the text
    push text
    push length                 ; its length
    push ds                     ; where the count of bytes written goes
    push count
    db 9Ah, 0FFh, 0FFh, 0, 0    ;@+1 far DOSCALLS.DosWrite
    push 1                      ; end the whole process
    push 0                      ; its exit code
    db 9Ah, 0FFh, 0FFh, 0, 0    ;@+1 far DOSCALLS.DosExit

;@ segment 2 data auto
section data vstart=0
text: db 'my first program', 10
length equ $ - text
    align 2, db 0
count: dw 0
