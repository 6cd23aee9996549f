/* Products, transposes and determinants of matrices. */
#include "support.h"

enum { SIZE = 12 };

typedef int matrix[SIZE][SIZE];

static void fill(matrix m)
{
	for (int i = 0; i < SIZE; i++)
		for (int j = 0; j < SIZE; j++)
			m[i][j] = (int)(next_number() % 2001) - 1000;
}

static void multiply(matrix product, matrix left, matrix right)
{
	for (int i = 0; i < SIZE; i++)
		for (int j = 0; j < SIZE; j++) {
			unsigned sum = 0;
			for (int k = 0; k < SIZE; k++)
				sum += (unsigned)left[i][k] * (unsigned)right[k][j];
			product[i][j] = (int)sum;
		}
}

static void transpose(matrix m)
{
	for (int i = 0; i < SIZE; i++)
		for (int j = 0; j < i; j++) {
			int kept = m[i][j];
			m[i][j] = m[j][i];
			m[j][i] = kept;
		}
}

/* by elimination without fractions, of the upper left corner */
static int determinant(matrix from, int size)
{
	int m[SIZE][SIZE], before = 1;
	for (int i = 0; i < size; i++)
		for (int j = 0; j < size; j++)
			m[i][j] = from[i][j] % 20;
	for (int k = 0; k < size - 1; k++) {
		if (m[k][k] == 0)
			return 0;
		for (int i = k + 1; i < size; i++)
			for (int j = k + 1; j < size; j++)
				m[i][j] = (m[i][j] * m[k][k] - m[i][k] * m[k][j]) / before;
		before = m[k][k];
	}
	return m[size - 1][size - 1];
}

static unsigned mixed(matrix m)
{
	unsigned sum = 0;
	for (int i = 0; i < SIZE; i++)
		for (int j = 0; j < SIZE; j++)
			sum = sum * 33 + (unsigned)m[i][j];
	return sum;
}

int main(void)
{
	static matrix a, b, ab, ba;
	fill(a);
	fill(b);
	multiply(ab, a, b);
	print_line("product", mixed(ab));
	transpose(a);
	transpose(b);
	multiply(ba, b, a);
	transpose(ba);
	print_line("the same", mixed(ba));
	for (int size = 1; size <= 4; size++) {
		print_signed(determinant(a, size));
		print("\n");
	}
	return mixed(ab) == mixed(ba) ? 17 : 1;
}
