       IDENTIFICATION DIVISION.
       PROGRAM-ID. P.
       ENVIRONMENT DIVISION.
       INPUT-OUTPUT SECTION.
       FILE-CONTROL.
           SELECT F ASSIGN TO "F" FILE STATUS IS S.
       DATA DIVISION.
       FILE SECTION.
       FD  F.
       01  A PIC X.
       WORKING-STORAGE SECTION.
       77  S PIC XX.
       PROCEDURE DIVISION.
           READ F AT END
           READ F AT END
           READ F AT END
           READ F AT END
           READ F AT END
           READ F AT END
           READ F AT END
           READ F AT END
           READ F AT END
           READ F AT END
           READ F AT END
           READ F AT END
           READ F AT END
           READ F AT END
           READ F AT END
           READ F AT END
           READ F AT END
           READ F AT END
           READ F AT END
           READ F AT END
           READ F AT END
           READ F AT END
           READ F AT END
           READ F AT END
           READ F AT END
           READ F AT END
           READ F AT END
           READ F AT END
           READ F AT END
           READ F AT END
           READ F AT END
           READ F AT END
           READ F AT END
           READ F AT END
           READ F AT END
           READ F AT END
           READ F AT END
           READ F AT END
           READ F AT END
           READ F AT END
           READ F AT END
           READ F AT END
           READ F AT END
           READ F AT END
           READ F AT END
           READ F AT END
           READ F AT END
           READ F AT END
           READ F AT END
           READ F AT END
           READ F AT END
           READ F AT END
           READ F AT END
           READ F AT END
           READ F AT END
           READ F AT END
           READ F AT END
           READ F AT END
           READ F AT END
           READ F AT END
           READ F AT END
           READ F AT END
           READ F AT END
           READ F AT END
           DISPLAY "IN"
           END-READ
           END-READ
           END-READ
           END-READ
           END-READ
           END-READ
           END-READ
           END-READ
           END-READ
           END-READ
           END-READ
           END-READ
           END-READ
           END-READ
           END-READ
           END-READ
           END-READ
           END-READ
           END-READ
           END-READ
           END-READ
           END-READ
           END-READ
           END-READ
           END-READ
           END-READ
           END-READ
           END-READ
           END-READ
           END-READ
           END-READ
           END-READ
           END-READ
           END-READ
           END-READ
           END-READ
           END-READ
           END-READ
           END-READ
           END-READ
           END-READ
           END-READ
           END-READ
           END-READ
           END-READ
           END-READ
           END-READ
           END-READ
           END-READ
           END-READ
           END-READ
           END-READ
           END-READ
           END-READ
           END-READ
           END-READ
           END-READ
           END-READ
           END-READ
           END-READ
           END-READ
           END-READ
           END-READ
           END-READ
           .
