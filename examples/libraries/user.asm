; user: calls a library by ordinal and by name, reads the library's data through its selector, and writes both counts.

;@ module USER
;@ stack 512
;@ start 1:0000
cpu 286
bits 16

;@ segment 1 code
section s1 vstart=0
        call 0:0FFFFh                   ;@+1 far COUNTER.1 next
        add al, '0'
        mov [0004h], al
        call 0:0FFFFh                   ;@+1 far COUNTER.NEXTALL nextall
        mov ax, 0FFFFh                  ;@+1 selector COUNTER.COUNT
        mov es, ax
        mov al, es:[0000h]
        add al, '0'
        mov [000Bh], al
        push 1                          ; the standard output
        push ds                         ; the text
        push strict word 0
        push 13                         ; its length
        push ds                         ; where the count of bytes written goes
        push 000Eh
        call 0:0FFFFh                   ;@+1 far DOSCALLS.DosWrite DosWrite
        push 1                          ; end the whole process
        push 0                          ; its exit code
        call 0:0FFFFh                   ;@+1 far DOSCALLS.DosExit DosExit

;@ segment 2 data auto
section s2 vstart=0
        db 'own ?'
        db ', all ?', 10
        db 0, 0, 0
