"""Who may come in to the desk, and what each may do.

  roles            the roles, and the person who asks
  authentication   the ways in: alone, by a password, by the name that a server in front sends
  accounts         the users' file
  passwords        how passwords are kept and compared
  limits           what slows wrong passwords down
  devices          browsers in which somebody has come in before
  sessions         signed cookies, and the tokens of their forms
  route_roles      the lowest role of each route
  request_checks   what is checked of each request, and the headers of each answer
  sign_in_log      who came in lately, or tried to
  user_commands    the commands that keep the users' file
"""
