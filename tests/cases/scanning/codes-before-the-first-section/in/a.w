% @@ @f x int @q c @d y @> @L @S a b @F
@d N 10 @C
 @i b.w
@(f@>= @ A.
@c
N
