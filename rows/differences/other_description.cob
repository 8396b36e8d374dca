      * OPEN of a file with a key of another length.
       IDENTIFICATION DIVISION.
       PROGRAM-ID. DIFFERENCE.
       ENVIRONMENT DIVISION.
       INPUT-OUTPUT SECTION.
       FILE-CONTROL.
           SELECT F ASSIGN TO "DIFFER"
               ORGANIZATION IS INDEXED
               ACCESS MODE IS DYNAMIC
               RECORD KEY IS K
               ALTERNATE RECORD KEY IS A WITH DUPLICATES
               FILE STATUS IS S.
           
           SELECT G ASSIGN TO "DIFFER"
               ORGANIZATION IS INDEXED
               ACCESS MODE IS DYNAMIC
               RECORD KEY IS GK
               FILE STATUS IS S.
       DATA DIVISION.
       FILE SECTION.
       FD  F.
       01  R.
           05  K PIC X(2).
           05  A PIC X(2).
           05  B PIC X(2).
       
       FD  G.
       01  GR.
           05  GK PIC X(3).
           05  GB PIC X(3).
       WORKING-STORAGE SECTION.
       01  S PIC XX.
       PROCEDURE DIVISION.
       MAIN-PARAGRAPH.
           OPEN OUTPUT F.
           CLOSE F.
           OPEN INPUT G.
           DISPLAY S.
           STOP RUN.
