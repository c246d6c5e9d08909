%% JSON: what replay writes, and what it reads of companions/live.
-module(replay_json).
-export([line/1, read/1]).

%% A value as one line. An object is {Pairs}, and its names keep their order; a text is a binary.
line(Value) -> [written(Value), $\n].

written({Pairs}) -> [${, joined([[written(atom_to_binary(Name)), ": ", written(Value)] || {Name, Value} <- Pairs]), $}];
written(Values) when is_list(Values) -> [$[, joined([written(Value) || Value <- Values]), $]];
written(Text) when is_binary(Text) -> [$", [escaped(Char) || <<Char/utf8>> <= Text], $"];
written(Other) -> io_lib:format("~w", [Other]).

joined(Parts) -> lists:join(", ", Parts).

escaped(Char) when Char =:= $"; Char =:= $\\ -> [$\\, Char];
escaped(Char) when Char < 32 -> io_lib:format("\\u~4.16.0b", [Char]);
escaped(Char) -> Char.

%% The value of a JSON text, where it is one. Objects are maps; their names, as all texts, are lists of characters. Of numbers
%% only whole ones are read: the companion writes no others.
read(Bytes) ->
    try value(skipped(Bytes)) of
        {Value, Rest} ->
            case skipped(Rest) of
                <<>> -> {ok, Value};
                _ -> error
            end
    catch
        error:_ -> error
    end.

skipped(<<Char, Rest/binary>>) when Char =:= $\s; Char =:= $\n; Char =:= $\r; Char =:= $\t -> skipped(Rest);
skipped(Bytes) -> Bytes.

value(<<"{", Rest/binary>>) -> members(skipped(Rest), #{});
value(<<"[", Rest/binary>>) -> elements(skipped(Rest), []);
value(<<$", Rest/binary>>) -> characters(Rest, []);
value(<<"true", Rest/binary>>) -> {true, Rest};
value(<<"false", Rest/binary>>) -> {false, Rest};
value(<<"null", Rest/binary>>) -> {null, Rest};
value(Bytes) ->
    {match, [{0, Length}]} = re:run(Bytes, "^-?[0-9]+", [{capture, first}]),
    <<Digits:Length/binary, Rest/binary>> = Bytes,
    {binary_to_integer(Digits), Rest}.

members(<<"}", Rest/binary>>, Done) -> {Done, Rest};
members(<<",", Rest/binary>>, Done) -> members(skipped(Rest), Done);
members(<<$", Rest/binary>>, Done) ->
    {Name, Behind} = characters(Rest, []),
    <<":", More/binary>> = skipped(Behind),
    {Value, Left} = value(skipped(More)),
    members(skipped(Left), Done#{Name => Value}).

elements(<<"]", Rest/binary>>, Done) -> {lists:reverse(Done), Rest};
elements(<<",", Rest/binary>>, Done) -> elements(skipped(Rest), Done);
elements(Bytes, Done) ->
    {Value, Rest} = value(Bytes),
    elements(skipped(Rest), [Value | Done]).

characters(<<$", Rest/binary>>, Done) -> {lists:reverse(Done), Rest};
characters(<<"\\u", Hex:4/binary, Rest/binary>>, Done) ->
    case binary_to_integer(Hex, 16) of
        High when High >= 16#D800, High < 16#DC00 ->
            <<"\\u", Low:4/binary, More/binary>> = Rest,
            characters(More, [16#10000 + (High - 16#D800) * 1024 + binary_to_integer(Low, 16) - 16#DC00 | Done]);
        Char -> characters(Rest, [Char | Done])
    end;
characters(<<$\\, Char, Rest/binary>>, Done) -> characters(Rest, [unescaped(Char) | Done]);
characters(<<Char/utf8, Rest/binary>>, Done) -> characters(Rest, [Char | Done]).

unescaped($n) -> $\n;
unescaped($t) -> $\t;
unescaped($r) -> $\r;
unescaped($b) -> $\b;
unescaped($f) -> $\f;
unescaped(Char) -> Char.
