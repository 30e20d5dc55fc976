/* GDAL as a reader for bench/speed.sh: opens the sheet named, reads its band whole, and prints rows, columns, filled posts, and the
   microseconds from the opening to the last cell; what GDAL does before it opens a file is not counted. */
#include <gdal.h>
#include <stdio.h>
#include <stdlib.h>
#include <time.h>

static double now(void)
{
    struct timespec t;
    clock_gettime(CLOCK_MONOTONIC, &t);
    return (double)t.tv_sec * 1e6 + (double)t.tv_nsec / 1e3;
}

int main(int argc, char **argv)
{
    GDALAllRegister();
    double began = now();
    GDALDatasetH sheet = argc > 1 ? GDALOpen(argv[1], GA_ReadOnly) : NULL;
    if (!sheet)
        return 1;
    int columns = GDALGetRasterXSize(sheet), rows = GDALGetRasterYSize(sheet);
    GDALRasterBandH band = GDALGetRasterBand(sheet, 1);
    float *cells = malloc(sizeof *cells * (size_t)columns * (size_t)rows);
    if (!cells || GDALRasterIO(band, GF_Read, 0, 0, columns, rows, cells, columns, rows, GDT_Float32, 0, 0) != CE_None)
        return 1;
    double took = now() - began;
    double none = GDALGetRasterNoDataValue(band, NULL);
    long filled = 0;
    for (long i = 0; i < (long)columns * rows; i++)
        filled += cells[i] != none;
    printf("%d %d %ld %.0f\n", rows, columns, filled, took);
    return 0;
}
