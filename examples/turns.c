#include <pthread.h>
#include <stdio.h>
typedef __int128 wide;
static long long hn[65][20480], hd[65][20480];
static pthread_mutex_t hm = PTHREAD_MUTEX_INITIALIZER;
static pthread_cond_t hq[64];
extern const char *const chan_name[];
extern const char *const proc_name[];
static wide up(int r, int a) { return (wide)hn[r][a]; }
static wide dn(int r, int a) { return (wide)hd[r][a] + 1; }
static int fr_put(int r, int d, wide n, wide m) {
  wide a = n < 0 ? -n : n, b = m, t;
  while (b != 0) { t = a % b; a = b; b = t; }
  n /= a; m /= a;
  if (n > 9223372036854775807LL || -n > 9223372036854775807LL) return 0;
  if (m > 9223372036854775807LL) return 0;
  hn[r][d] = (long long)n; hd[r][d] = (long long)(m - 1);
  return 1;
}
static void fr_set(int r, int d, long long n, long long m) { hn[r][d] = n; hd[r][d] = m - 1; }
static void fr_move(int q, int d, int r, int a) { hn[q][d] = hn[r][a]; hd[q][d] = hd[r][a]; }
static int fr_add(int r, int d, int a, int b) {
  return fr_put(r, d, up(r, a) * dn(r, b) + up(r, b) * dn(r, a), dn(r, a) * dn(r, b)); }
static int fr_sub(int r, int d, int a, int b) {
  return fr_put(r, d, up(r, a) * dn(r, b) - up(r, b) * dn(r, a), dn(r, a) * dn(r, b)); }
static int fr_mul(int r, int d, int a, int b) {
  return fr_put(r, d, up(r, a) * up(r, b), dn(r, a) * dn(r, b)); }
static int fr_div(int r, int d, int a, int b) {
  wide n = up(r, a) * dn(r, b), m = dn(r, a) * up(r, b);
  return m < 0 ? fr_put(r, d, -n, -m) : fr_put(r, d, n, m); }
static void fr_neg(int r, int d, int a) { hn[r][d] = -hn[r][a]; hd[r][d] = hd[r][a]; }
static int fr_cmp(int r, int a, int b) {
  wide x = up(r, a) * dn(r, b), y = up(r, b) * dn(r, a);
  return x < y ? -1 : x > y; }
static int fr_sign(int r, int a) { return hn[r][a] < 0 ? -1 : hn[r][a] > 0; }
static void out_frac(int r, int a) {
  if (hd[r][a] == 0) printf("%lld", hn[r][a]);
  else printf("%lld/%lld", hn[r][a], hd[r][a] + 1); }
static void out_delay(int r, int a, int b) {
  out_frac(r, a); printf(" delay "); out_frac(r, b); printf("\n"); }
static void out_comm(int r, int a, int c, int p, int q, int b) {
  out_frac(r, a); printf(" comm %s %s %s ", chan_name[c], proc_name[p], proc_name[q]);
  out_frac(r, b); printf("\n"); }
static void out_log(int r, int a, int p, int b) {
  out_frac(r, a); printf(" log %s ", proc_name[p]); out_frac(r, b); printf("\n"); }
static void out_end(int k, int r, int a, int w) {
  static const char *const kind[5] = { "terminated", "deadlock", "horizon", "limit", "overflow" };
  printf("end %s ", kind[k]); out_frac(r, a);
  if (k == 4) printf(" %s", w < 0 ? "*" : proc_name[w]);
  printf("\n"); }
static void m_lock(void) { pthread_mutex_lock(&hm); }
static void m_unlock(void) { pthread_mutex_unlock(&hm); }
static void c_wait(int k) { pthread_cond_wait(&hq[k], &hm); }
static void c_wake(int k) { pthread_cond_broadcast(&hq[k]); }
static int hc_main(int n, void *(*const f[])(void *)) {
  pthread_t t[64];
  int i;
  for (i = 0; i < 64; i++) pthread_cond_init(&hq[i], 0);
  printf("hcsp-trace 2\n");
  for (i = 0; i < n; i++) if (pthread_create(&t[i], 0, f[i], 0) != 0) return 5;
  for (i = 0; i < n; i++) pthread_join(t[i], 0);
  return 0;
}
static int a_full[1];
const char *const chan_name[1] = { "c" };
const char *const proc_name[2] = { "P", "Q" };
static void *t0(void *v_u) {
  int v_i = 0;
  while (v_i < 3) {
    m_lock();
    while (a_full[0]) { c_wait(0); }
    fr_set(64, 2, 1, 2);
    fr_add(64, 1, 1, 2);
    a_full[0] = 1;
    c_wake(1);
    m_unlock();
    v_i = v_i + 1;
  }
  return 0;
}
static void *t1(void *v_u) {
  int v_i = 0;
  while (v_i < 3) {
    m_lock();
    while (!a_full[0]) { c_wait(1); }
    out_comm(64, 0, 0, 0, 1, 1);
    a_full[0] = 0;
    c_wake(0);
    if (v_i == 2) { out_end(0, 64, 0, -1); }
    m_unlock();
    v_i = v_i + 1;
  }
  return 0;
}
static void *(*const hc_threads[2])(void *) = { t0, t1 };
int main(void) { return hc_main(2, hc_threads); }
