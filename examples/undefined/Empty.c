/* expect: Empty at line 5 */
int main(void) {
	int most, i;
	for (i = 0; i < 10; i++)
		if (i * i % 7 > most)
			most = i;
	return most;
}
