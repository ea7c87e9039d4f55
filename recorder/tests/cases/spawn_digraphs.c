/* expect: race; brackets in their other spelling */
#include <cilk/cilk.h>
static int a<:2:>;
static int one(void) <% return 1; %>
int main(void) <%
  a<:0:> = cilk_spawn one(); /* race: a, spawn: a */
  int seen = a<:0:>; /* race: a */
  cilk_sync;
  return seen - 1;
%>
