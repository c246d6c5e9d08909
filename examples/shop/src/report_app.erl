-module(report_app).
-behaviour(application).
-export([start/2, stop/1]).

start(_Type, _Argument) -> report_sup:start_link().

stop(_State) -> ok.
