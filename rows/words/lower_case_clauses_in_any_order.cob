       identification division.
       program-id. p.
       environment division.
       input-output section.
       file-control.
           select f assign to "F".
           select g assign to "G".
       data division.
       file section.
       fd f label records are standard block contains 1 to 10 records
           record contains 80 characters data records are a b.
       01 a pic x.
       01 b pic xx.
       fd g data record c record 8 block 5 label record omitted.
       01 c pic x(8).
       working-storage section.
       01 d pic x value "D".
       procedure division.
           move "AB" to b.
           move "C" to c.
           display a "/" b "/" c "/" d.
           stop run.
