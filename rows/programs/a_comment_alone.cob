      * a comment alone
