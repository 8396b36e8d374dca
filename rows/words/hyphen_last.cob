       ADD A- 5
