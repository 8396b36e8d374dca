       MOVE "" TO A
