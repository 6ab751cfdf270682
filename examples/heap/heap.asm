; heap: makes a heap of a segment of 64 bytes, takes three blocks of it, frees the second, takes a smaller one, and writes a text into it.

;@ module HEAP
;@ stack 512
;@ start 1:0000
cpu 286
bits 16

; the first word of the data has the segment's selector, and those after it the blocks' offsets
;@ segment 1 code
section s1 vstart=0
        push 64
        push ds
        push 0
        push 0
        call 0:0FFFFh                   ;@+1 far DOSCALLS.DosAllocSeg DosAllocSeg
        push word [0]
        push 1
        push 64
        call 0:0FFFFh                   ;@+1 far DOSCALLS.DosSubSet DosSubSet
        push word [0]
        push ds
        push 2
        push 5
        call 0:0FFFFh                   ;@+1 far DOSCALLS.DosSubAlloc DosSubAlloc
        push word [0]
        push ds
        push 4
        push 16
        call 0:0FFFFh                   ;@+1 far DOSCALLS.DosSubAlloc DosSubAlloc
        push word [0]
        push ds
        push 6
        push 12
        call 0:0FFFFh                   ;@+1 far DOSCALLS.DosSubAlloc DosSubAlloc
        push word [0]
        push word [4]
        push 16
        call 0:0FFFFh                   ;@+1 far DOSCALLS.DosSubFree DosSubFree
        push word [0]
        push ds
        push 8
        push 4
        call 0:0FFFFh                   ;@+1 far DOSCALLS.DosSubAlloc DosSubAlloc
        mov es, [0]
        mov bx, [8]
        mov word es:[bx], 'ab'
        push word [0]
        push ds
        push 10
        push 32
        call 0:0FFFFh                   ;@+1 far DOSCALLS.DosSubAlloc DosSubAlloc
        push 1
        push 0
        call 0:0FFFFh                   ;@+1 far DOSCALLS.DosExit DosExit

; the selector, five offsets, and the stack
;@ segment 2 data auto size=16
section s2 vstart=0
