{application, report, [
    {description, "Reports to the accountants"},
    {vsn, "1.0"},
    {modules, [report_app, report_sup]},
    {registered, [report_sup]},
    {applications, [kernel, stdlib, pool]},
    {mod, {report_app, []}}]}.
