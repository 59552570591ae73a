int f(int n, int m)
<%
    int i = 0, s = 0;
    while (i < n) <% s += 2; i++; %>
    return s;
%>
