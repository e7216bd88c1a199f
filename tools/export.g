##  export.g: write a finite p-group that GAP knows as a .pcp file, the presentation that the collector reads.
##
##      gap -q export.g
##      gap> ExportPcp( SmallGroup( 64, 13 ), "group.pcp" );
##      true
##
##  or, in one line,
##
##      echo 'ExportPcp( DihedralGroup( 16 ), "group.pcp" );' | gap -q export.g
##
##  ExportPcp( G, name ) takes any group GAP can turn into a polycyclic one (a pc group, a permutation or a matrix group, a finite pcp
##  group): of order p^n, p a prime up to 251 and n from 1 to 40. It writes the file and returns true. Of any other group it says what
##  is wrong, writes nothing and returns fail.
##
##  ExportPcpWithPcgs( pcgs, name ) does the same for generators of your own choice: a pcgs with relative orders all p that refines a
##  central series. To compare elements with GAP use the same pcgs: the collector's vector of g is ExponentsOfPcElement( pcgs, g ).
##  PcpPcgs( G ) is the pcgs that ExportPcp takes.
##
##  What is written. With x_i the i-th element of the pcgs, the file holds the words w_i = x_i^p and w_ij = x_j^-1 x_i^-1 x_j x_i
##  (i < j), so that x_j x_i = x_i x_j w_ij; in GAP w_ij is Comm( x_j, x_i ). The collector wants only generators above j in w_ij, which
##  holds exactly where the series of the pcgs is central. GAP's own pcgs of a p-group often is and need not be, so it is taken where it
##  is, and a refinement of the lower p-central series is taken where it is not.
##
##  The file: 16-bit numbers, low byte first: p, n, then start and length of each word (counted in pairs), then the words as pairs
##  generator, exponent; the words in the order w_1 .. w_n, w_12, w_13, .., w_1n, w_23, ..

##  The words of the presentation on <pcgs>, in the file's order, as lists of pairs; fail if the series of <pcgs> is not central.
PcpWords := function( pcgs )
    local n, words, Word, i, j, w;

    n := Length( pcgs );

    ##  The pairs of the element g, or fail if it uses a generator up to <floor>.
    Word := function( g, floor )
        local exps, pairs, k;
        exps := ExponentsOfPcElement( pcgs, g );
        pairs := [];
        for k in [ 1 .. n ] do
            if exps[k] <> 0 then
                if k <= floor then
                    return fail;
                fi;
                Add( pairs, [ k, exps[k] ] );
            fi;
        od;
        return pairs;
    end;

    words := [];
    for i in [ 1 .. n ] do
        w := Word( pcgs[i] ^ RelativeOrders( pcgs )[i], i );
        if w = fail then
            return fail;
        fi;
        Add( words, w );
    od;
    for i in [ 1 .. n ] do
        for j in [ i + 1 .. n ] do
            w := Word( ( pcgs[i] * pcgs[j] ) ^ -1 * ( pcgs[j] * pcgs[i] ), j );
            if w = fail then
                return fail;
            fi;
            Add( words, w );
        od;
    od;
    return words;
end;

##  A pcgs of the pc p-group <H> whose series is central: GAP's own where it will do.
PcpPcgsOfPcGroup := function( H )
    local pcgs;
    pcgs := Pcgs( H );
    if ForAll( RelativeOrders( pcgs ), IsPrimeInt ) and PcpWords( pcgs ) <> fail then
        return pcgs;
    fi;
    return PcgsPCentralSeriesPGroup( H );
end;

##  What keeps <G> from being written, as a string; "" if nothing does.
PcpObstacle := function( G )
    local p, n;
    if not IsGroup( G ) then
        return "not a group";
    elif not IsFinite( G ) then
        return "not a finite group";
    elif IsTrivial( G ) then
        return "the trivial group has no generator, and a presentation has at least one";
    elif not IsPGroup( G ) then
        return "its order is not a power of a prime";
    fi;
    p := PrimePGroup( G );
    n := LogInt( Size( G ), p );
    if p > 251 then
        return Concatenation( "the prime ", String( p ), " is above 251" );
    elif n > 40 then
        return Concatenation( "its order is ", String( p ), "^", String( n ), ", and n goes to 40" );
    fi;
    return "";
end;

##  The pcgs that ExportPcp takes for <G>: of <G> itself if it is a pc group, otherwise of an isomorphic one.
PcpPcgs := function( G )
    if IsPcGroup( G ) then
        return PcpPcgsOfPcGroup( G );
    fi;
    return PcpPcgsOfPcGroup( Image( IsomorphismPcGroup( G ) ) );
end;

##  The numbers of the file, or fail where <pcgs> is not as it has to be.
PcpNumbers := function( pcgs )
    local orders, words, numbers, start, w, pair;

    orders := RelativeOrders( pcgs );
    if Length( Set( orders ) ) <> 1 or not IsPrimeInt( orders[1] ) or orders[1] > 251 or Length( orders ) > 40 then
        return fail;
    fi;
    words := PcpWords( pcgs );
    if words = fail then
        return fail;
    fi;
    numbers := [ orders[1], Length( pcgs ) ];
    start := 0;
    for w in words do
        Append( numbers, [ start, Length( w ) ] );
        start := start + Length( w );
    od;
    for w in words do
        for pair in w do
            Append( numbers, pair );
        od;
    od;
    return numbers;
end;

ExportPcpWithPcgs := function( pcgs, name )
    local numbers, out, x;

    numbers := PcpNumbers( pcgs );
    if numbers = fail then
        Print( "ExportPcp: the pcgs needs relative orders all one prime up to 251, at most 40 elements and a central series\n" );
        return fail;
    fi;
    out := OutputTextFile( name, false );
    if out = fail then
        Print( "ExportPcp: cannot write ", name, "\n" );
        return fail;
    fi;
    SetPrintFormattingStatus( out, false );
    for x in numbers do
        WriteByte( out, x mod 256 );
        WriteByte( out, QuoInt( x, 256 ) );
    od;
    CloseStream( out );
    return true;
end;

ExportPcp := function( G, name )
    local obstacle;
    obstacle := PcpObstacle( G );
    if obstacle <> "" then
        Print( "ExportPcp: ", obstacle, "\n" );
        return fail;
    fi;
    return ExportPcpWithPcgs( PcpPcgs( G ), name );
end;
