; null: an access through a null selector: the load passes.

;@ module NULL
;@ stack 512
;@ start 1:0000
cpu 286
bits 16

;@ segment 1 code
section s1 vstart=0
        xor ax, ax
        mov es, ax                      ; null may be loaded into ES
        mov ax, es:[0]                  ; and reaches nothing

;@ segment 2 data auto size=16
section s2 vstart=0
