# 1 "src/b.c" 1
# 40 "include/b.h" 1
int x = 1;
int y = @;
