/* What the rewriter writes in C: marks, which the compiler pass (pass/spawns.cpp) turns into calls of the runtime. The rewriter puts this text,
   which no preprocessor reads, before the program's. */
extern void __cilkcheck_mark_spawn(int, const char *, int, const volatile void *);
extern void __cilkcheck_mark_spawned(int);
extern void __cilkcheck_mark_sync(void);
extern void __cilkcheck_mark_sync_left(void *);
extern void __cilkcheck_mark_scope_begin(void);
extern void __cilkcheck_mark_scope_left(void *);
extern void __cilkcheck_mark_outlined(void);
