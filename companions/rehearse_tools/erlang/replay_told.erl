%% What replay prints: a text with two columns, or a line of JSON for each command.
-module(replay_told).
-export([head/1, line/2, result/3, last/2, late/1]).

text(Format, Values) -> lists:flatten(io_lib:format(Format, Values)).

%% What stands above the first command.
head(#{json := true}) -> ok;
head(#{compare := Compare, release := Release, measured := Measured} = Run) ->
    Left = case Compare of "live" -> "live"; _ -> "rehearse" end,
    row($\s, Left, text("OTP ~ts", [erlang:system_info(otp_release)]), Run),
    [io:format("#~~ This is OTP ~ts. What docs/LIVE_OTP.md and the companion live tell was measured on OTP ~ts.~n",
               [Release, Measured]) || Release =/= Measured].

%% A line of the script, before it is done.
line(_, #{json := true}) -> ok;
line(Line, _) -> io:format("~ts~n", [Line]).

row(Mark, Left, Right, #{width := Width}) ->
    io:format("~ts~n", [string:trim(lists:flatten([Mark, $\s, string:pad(Left, Width), "  ", Right]), trailing)]).

%% What came of a command. `Firsts` names those, of the rules and live, from which the nodes differ here for the first time,
%% where more commands follow.
result(Result, _, #{json := true}) -> io:put_chars(replay_json:line(object(Result)));
result(#{rows := Rows, wrote := Wrote, late := Late, stands := Stands, busy := Busy} = Result, Firsts, Run) ->
    #{compare := Compare} = Run,
    Aside = fun(Told) -> row($\s, "", "  " ++ Told, Run) end,
    [begin
         row(Mark, Left, Right, Run),
         [Aside("it wrote: " ++ Last) || Mark =:= $>, {Node, Last} <- Wrote, Right =:= text("ended ~ts", [Node])]
     end || {Mark, Left, Right} <- Rows],
    [Aside(late(Timer)) || Compare =:= "live", Timer <- Late],
    [Aside(text("~ts: ~ts ~ts~ts", [Node, Process, place(Place), queue(Length)])) || {Node, Process, Place, Length} <- Stands],
    [Aside(text("~ts is busy: ~.2f of a processor over the last 2 s", [Node, Share])) || {Node, Share} <- Busy],
    [io:format("#~~ line ~b behind === is the first that differs: from here on ~ts and the nodes have different pasts~n",
               [maps:get(line, Result), First]) || First <- Firsts],
    ok.

%% A timer that is over before its time.
late(Timer) -> "no time left, give a greater --factor: " ++ Timer.

place(idle) -> "is idle";
place({Function, Arity}) -> text("stands in ~ts/~b", [Function, Arity]).

queue(0) -> "";
queue(1) -> ", 1 message waits";
queue(Length) -> text(", ~b messages wait", [Length]).

%% ---- JSON

object(#{line := Number, command := Command, agrees := Agrees, rules := Rules, nodes := Nodes, rows := Rows} = Result) ->
    #{late := Late, stands := Stands, busy := Busy, wrote := Wrote} = Result,
    {[{line, Number}, {command, chars(Command)}, {agrees, Agrees}, {rules, texts(Rules)}, {nodes, texts(Nodes)},
      {rows, rows(Rows)}]
     ++ live(Result)
     ++ [{late, texts(Late)},
         {stands, [{[{node, name(Node)}, {process, name(Process)}, {function, function(Place)}, {messages, Length}]}
                   || {Node, Process, Place, Length} <- Stands]},
         {busy, [{[{node, name(Node)}, {share, round(Share * 100) / 100}]} || {Node, Share} <- Busy]},
         {wrote, [{[{node, name(Node)}, {text, chars(Last)}]} || {Node, Last} <- Wrote]}]}.

live(#{live := Lines, agrees_live := Agrees, rows_live := Rows}) ->
    [{live, texts(Lines)}, {agrees_live, Agrees}, {rows_live, rows(Rows)}];
live(_) -> [].

rows(Rows) -> [[chars([Mark]), chars(Left), chars(Right)] || {Mark, Left, Right} <- Rows].

function(idle) -> null;
function({Function, Arity}) -> chars(text("~ts/~b", [Function, Arity])).

texts(Lines) -> [chars(Line) || Line <- Lines].
chars(Line) -> unicode:characters_to_binary(Line).
name(Atom) -> atom_to_binary(Atom).

%% ---- Behind the last command

%% How many commands agree. Results are {Line, Agrees, AgreesWithLive}, the last one without a `live` to compare with.
last(Results, #{json := true, compare := Compare} = Run) ->
    #{release := Release, measured := Measured, factor := Factor, patience := Patience, orders := Orders} = Run,
    Live = [Pair || Compare =/= "rules",
                    Pair <- [{agree_live, agree(3, Results)}, {first_live, first(3, Results)}, {orders, Orders}]],
    io:put_chars(replay_json:line({[{commands, length(Results)}, {agree, agree(2, Results)}, {first, first(2, Results)}]
        ++ Live
        ++ [{compare, chars(Compare)}, {release, chars(Release)}, {measured, chars(Measured)}, {factor, Factor},
            {patience, Patience}]}));
last(Results, #{compare := "rules"}) -> io:format("~b of ~b commands agree~n", [agree(2, Results), length(Results)]);
last(Results, #{compare := "live"}) -> io:format("~b of ~b commands agree with live~n", [agree(2, Results), length(Results)]);
last(Results, #{compare := "both"}) ->
    io:format("~b of ~b commands agree with the rules, ~b of ~b with live~n",
              [agree(2, Results), length(Results), agree(3, Results), length(Results)]).

agree(Place, Results) -> length([yes || Result <- Results, element(Place, Result)]).

%% The line of the first command that doesn't agree.
first(Place, Results) -> hd([element(1, Result) || Result <- Results, not element(Place, Result)] ++ [null]).
