"""Dumps of ID registers in the shapes in which boards, debuggers and kernels print them. One module reads one shape;
`reader` tries them line by line, and `machine` makes the text. What is not understood beyond doubt is refused."""
