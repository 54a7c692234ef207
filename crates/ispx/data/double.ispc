export void f(uniform int a[]) { a[programIndex] = a[programIndex] * 2 + 1; }
