#ifndef MATH_H_OF_INVAR
#define MATH_H_OF_INVAR
double sqrt(double value), fabs(double value), pow(double base, double exponent), sin(double value), cos(double value);
double floor(double value), ceil(double value), exp(double value), log(double value);
#endif
