; One processor of a grid that counts itself. A token comes to it from its parent, it gives one on to the
; processors to its right and below it, takes their counts, and gives the sum and 1 to its parent.
;
; Its arguments: the link to its parent; whether it waits for a token; whether there is a processor at
; link 1, to its right; and whether there is one at link 2, below it.
.module count
.export main

main:   ldc 1
        stl 4           ; local 4: the count
        ldl 1
        cj go           ; the first waits for no token
        ldlp 5          ; C: the address of local 5, a word that comes
        ldl 0           ; B: the input channel of the link to its parent
        adc 4
        mint
        wsub
        ldc 4           ; A: four bytes
        in

go:     ldl 2
        cj below
        ldlp 4          ; the token is the count so far
        mint
        ldnlp 1         ; the output channel of link 1
        ldc 4
        out
below:  ldl 3
        cj right
        ldlp 4
        mint
        ldnlp 2         ; the output channel of link 2
        ldc 4
        out

right:  ldl 2
        cj under
        ldlp 5
        mint
        ldnlp 5         ; the input channel of link 1
        ldc 4
        in
        ldl 4
        ldl 5
        add
        stl 4
under:  ldl 3
        cj told
        ldlp 5
        mint
        ldnlp 6         ; the input channel of link 2
        ldc 4
        in
        ldl 4
        ldl 5
        add
        stl 4

told:   ldlp 4
        ldl 0           ; the output channel of the link to its parent
        mint
        wsub
        ldc 4
        out
        stopp
