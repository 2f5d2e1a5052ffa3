; The processor at the end of the pipeline: it gives the numbers from 2 to its argument by link 1, and
; then 0.
.module numbers
.export main

main:   ldc 2
        stl 1
next:   ldlp 1          ; C: the address of local 1, the number
        mint
        ldnlp 1         ; B: the output channel of link 1
        ldc 4           ; A: four bytes
        out
        ldl 1
        adc 1
        stl 1
        ldl 1
        ldl 0
        gt
        cj next         ; the number is not above the argument
        ldc 0
        stl 1
        ldlp 1
        mint
        ldnlp 1
        ldc 4
        out
        stopp
