# 10 "types.h"
typedef int T;
# 2 "a.c"
int main(void)
{
	T = 1;
}
