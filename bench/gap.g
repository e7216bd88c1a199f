##  gap.g: GAP's own times on the benchmark's products and inverses.
##
##      gap -q CASES gap.g < /dev/null
##
##  CASES is what `bench --cases CASES` writes: for each group its numbers and cases [ u, v, uv, inverse of u ] as exponent vectors.
##  Each group is built with GAP's single collector, its products and inverses are compared with the stored ones, and one line is
##  printed for each: group, call, ns a call (the best of several rounds). GAP multiplies elements that exist already and counts
##  nothing, so its time is the collection alone, with the making of the new element.

##  The group of a row of numbers.
BenchGroup := function( numbers )
    local p, n, F, gens, coll, bodies, at, WordAt, i, j;
    p := numbers[1];
    n := numbers[2];
    F := FreeGroup( IsSyllableWordsFamily, n );
    gens := GeneratorsOfGroup( F );
    coll := SingleCollector( F, List( [ 1 .. n ], i -> p ) );
    bodies := 2 + n * ( n + 1 );
    at := 3;
    WordAt := function()
        local w, k;
        w := One( F );
        for k in [ numbers[at] .. numbers[at] + numbers[at + 1] - 1 ] do
            w := w * gens[ numbers[bodies + 2 * k + 1] ] ^ numbers[bodies + 2 * k + 2];
        od;
        at := at + 2;
        return w;
    end;
    for i in [ 1 .. n ] do
        SetPower( coll, i, WordAt() );
    od;
    for i in [ 1 .. n ] do
        for j in [ i + 1 .. n ] do
            SetCommutator( coll, j, i, WordAt() );
        od;
    od;
    return GroupByRwsNC( coll );
end;

##  ns a call of <f> on the list <args> of argument lists: the best of several rounds of about a millisecond.
BenchTime := function( f, args )
    local reps, best, from, took, r, m, a;
    reps := 1;
    repeat
        from := NanosecondsSinceEpoch();
        for m in [ 1 .. reps ] do
            for a in args do
                f( a[1], a[2] );
            od;
        od;
        took := NanosecondsSinceEpoch() - from;
        if took < 1000000 then
            reps := 2 * reps;
        fi;
    until took >= 1000000;
    best := took;
    for r in [ 1 .. 7 ] do
        from := NanosecondsSinceEpoch();
        for m in [ 1 .. reps ] do
            for a in args do
                f( a[1], a[2] );
            od;
        od;
        took := NanosecondsSinceEpoch() - from;
        best := Minimum( best, took );
    od;
    return QuoInt( best, reps * Length( args ) );
end;

BenchRun := function()
    local g, G, pcgs, elms, c;
    for g in BenchGroups do
        G := BenchGroup( g.numbers );
        pcgs := FamilyPcgs( G );
        elms := List( g.cases, c -> List( c, v -> PcElementByExponents( pcgs, v ) ) );
        for c in elms do
            if c[1] * c[2] <> c[3] then
                Print( "DIFFERENCE: ", g.name, " product\n" );
            fi;
            if c[1] ^ -1 <> c[4] then
                Print( "DIFFERENCE: ", g.name, " inverse\n" );
            fi;
        od;
        Print( g.name, " product ", BenchTime( function( a, b ) return a * b; end, elms ), "\n" );
        Print( g.name, " inverse ", BenchTime( function( a, b ) return a ^ -1; end, elms ), "\n" );
    od;
end;

BenchRun();
QUIT;
