/* Refused: the name `total` is not declared. `fault 11 Unknown at 4:5` */
int main(void)
{
    total = 1;
    return 0;
}
