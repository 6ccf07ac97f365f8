# The customer's rules may call the server of keys.
/<!-- channels -->/a\
    <channel>\
        <end pd="rules" id="2" pp="true" />\
        <end pd="crypto" id="2" notify="false" />\
    </channel>
