/* expect: Subscript at line 11 */
static int board[3][4];

int main(void)
{
    int y, x, sum = 0;
    for (y = 0; y < 3; y++)
        for (x = 0; x < 4; x++)
            board[y][x] = 1;
    for (x = 0; x < 12; x++)
        sum += board[0][x];
    return sum;
}
