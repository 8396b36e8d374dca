           DISPLAY "AB
      * COMMENT
