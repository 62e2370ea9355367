"""Grades: a rubric, the hand-ins of a class, what each is worth, and the forms that course systems read."""
