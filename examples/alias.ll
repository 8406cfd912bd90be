; Each of the two aliases stands for the other, and none for a definition.
@first = alias i64, ptr @second
@second = alias i64, ptr @first
